package lights;

@VintfStability
enum LightKind {
    BACKLIGHT,
    KEYBOARD,
    BATTERY,
    CAMERA,
}
