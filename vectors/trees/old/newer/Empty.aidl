package newer;

parcelable Empty {
}
