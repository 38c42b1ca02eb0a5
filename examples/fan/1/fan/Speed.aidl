package fan;
parcelable Speed {
    int low;
    int high;
}
