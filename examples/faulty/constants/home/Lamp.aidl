package home;

parcelable Lamp {
    const int MAX = LIMIT * 2;
    const int LIMIT = MAX / 2;
    byte level = 200;
    int steps = 100 / 0;
}
