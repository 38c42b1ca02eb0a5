package sensors;

/** One reading. */
@VintfStability
parcelable SensorEvent {
    int handle;
    long timestamp;
    Payload payload;

    union Payload {
        int scalar;
        int[] vector;
        byte[] raw;
        Status status;
    }

    @Backing(type="byte")
    enum Status {
        UNRELIABLE,
        LOW,
        HIGH = 3,
    }
}
