package newer;

import calls.Sample;

union Choice {
    int number;
    calls.Sample sample;
}
