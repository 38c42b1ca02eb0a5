package newer;

@FixedSize parcelable Fixed {
    long a = -9;
}
