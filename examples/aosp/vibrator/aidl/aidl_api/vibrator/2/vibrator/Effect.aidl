package vibrator;

@VintfStability
parcelable Effect {
    const int STEPS = 4;

    float strength = 0.5f;
    int[STEPS] pattern;
    ParcelableHolder extension;
    double frequency = 150.0;
}
