package lights;

import lights.LightKind;

/** A light of the device. */
@VintfStability
parcelable Light {
    int id;
    int ordinal;
    LightKind kind;
}
