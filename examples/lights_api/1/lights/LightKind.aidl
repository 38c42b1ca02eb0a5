package lights;
@Backing(type="byte") @VintfStability enum LightKind {
  BACKLIGHT = 0,
  KEYBOARD = 1,
  BATTERY = 2,
}
