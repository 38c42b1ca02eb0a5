package fan;
parcelable Speed {
    int high;
    int low;
}
