package home;

/** Größe, Farbe und Helligkeit (明るさ). */
parcelable Lamp {
    /* größer als 0 */ int level = 08;
}
