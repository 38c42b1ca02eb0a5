package vibrator;

@VintfStability
interface IVibrator {
    const float STRONGEST = 1.0f;

    void on(int milliseconds, vibrator.ICallback callback);
    oneway @RequiresNoPermission void off();
    void play(in vibrator.Effect effect, IBinder owner);
}
