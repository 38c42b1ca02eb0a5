package calls;

import calls.Sample;

oneway interface IEvents {
    void started() = 3;
    void happened(in calls.Sample a, long b) = 10;
    void stopped(@nullable String a) = 0;
}
