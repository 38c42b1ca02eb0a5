package sensors;

import sensors.SensorType;

/** What is known of a sensor before it sends anything. */
@VintfStability
parcelable SensorInfo {
    const int FLAG_WAKE_UP = 1 << 0;
    const int FLAG_ONE_SHOT = FLAG_WAKE_UP << 1;
    const String DEFAULT_VENDOR = "acme" + " sensors";

    int handle;
    String name;
    String vendor = DEFAULT_VENDOR;
    SensorType type = SensorType.ACCELEROMETER;
    int flags = FLAG_WAKE_UP | FLAG_ONE_SHOT;
    int[] rates = {10, 50, 1000 / 10};
    @nullable Calibration calibration;

    /** Made at the factory; sensors without one are used as they are. */
    @FixedSize
    parcelable Calibration {
        long madeAt;
        int offset;
        int scale = 1000;
    }
}
