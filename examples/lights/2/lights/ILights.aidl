package lights;

import lights.Light;
import lights.LightState;

@VintfStability
interface ILights {
    void setState(in int id, in LightState state);
    Light[] getLights();
}
