package home;

@Fixed
parcelable Lamp {
    @nullable int level;
    List<int> levels;
    Lamp next;
}
