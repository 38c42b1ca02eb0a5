package lights;
@VintfStability parcelable LightState {
  int color;
  int onMs;
  int offMs;
  @nullable String label;
}
