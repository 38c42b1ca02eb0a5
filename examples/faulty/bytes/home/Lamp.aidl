package home;

parcelable Lamp {
    int level = 08;
    String name = "ceiling;
}
