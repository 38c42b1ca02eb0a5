package lights;

/** How a light is to shine: a colour, and how long it is on and off when it blinks. */
@VintfStability
parcelable LightState {
    int color;
    int onMs;
    int offMs;
    /** What the user sees beside the switch. */
    @nullable String label;
}
