package values;

parcelable Texts {
    String wide = "x";
    @utf8InCpp String narrow;
    @nullable String maybeWide;
    @nullable @utf8InCpp String maybeNarrow;
}
