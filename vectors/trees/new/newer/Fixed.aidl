package newer;

import newer.FixedChoice;
import newer.Small;

@FixedSize parcelable Fixed {
    boolean flag;
    byte octet;
    char unit;
    int number = -9;
    long wide;
    newer.Small small = newer.Small.MOST;
    newer.FixedChoice choice;
}
