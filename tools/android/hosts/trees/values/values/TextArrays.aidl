package values;

parcelable TextArrays {
    String[] wide;
    @utf8InCpp String[] narrow;
    @nullable String[] maybeWide;
    @nullable @utf8InCpp String[] maybeNarrow;
    List<String> list;
    @nullable List<String> maybeList;
}
