package home;

parcelable Lamp {
    int level = 8
    String name;
}
