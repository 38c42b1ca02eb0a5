package vibrator;

@VintfStability
interface ICallback {
    oneway void onComplete();
}
