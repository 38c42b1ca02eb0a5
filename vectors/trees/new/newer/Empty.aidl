package newer;

parcelable Empty {
    int added = 9;
}
