package vibrator;

import android.os.IBinder;
import common.Handle;
import vibrator.Effect;
import vibrator.ICallback;

/** A vibrator. It has callbacks, a binder, a file descriptor in what it imports, floats and arrays with lengths. */
@VintfStability
interface IVibrator {
    const float STRONGEST = 1.0f;

    void on(int milliseconds, ICallback callback);
    oneway @RequiresNoPermission void off();
    void play(in Effect effect, IBinder owner);
    void load(in Handle wave);
}
