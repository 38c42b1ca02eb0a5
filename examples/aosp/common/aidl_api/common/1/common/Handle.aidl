package common;

@VintfStability
parcelable Handle {
    ParcelFileDescriptor file;
    int[] numbers = {};
}
