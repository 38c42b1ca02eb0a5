package lights;
@VintfStability parcelable Light {
  int id;
  int ordinal;
  lights.LightKind kind;
}
