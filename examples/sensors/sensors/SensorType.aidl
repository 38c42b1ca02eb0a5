package sensors;

@VintfStability
@Backing(type="int")
enum SensorType {
    ACCELEROMETER = 1,
    LIGHT = 5,
    PRESSURE = 6,
    /** The first number that a vendor may use. */
    VENDOR_BASE = 1 << 16,
}
