package lights;
@VintfStability interface ILights {
  void setState(in int id, in lights.LightState state) = 0;
  lights.Light[] getLights() = 1;
  oneway void reset() = 2;
}
