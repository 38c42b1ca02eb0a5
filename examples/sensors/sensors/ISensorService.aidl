package sensors;

import sensors.SensorEvent;
import sensors.SensorInfo;

@VintfStability
interface ISensorService {
    const int MAX_RATE = 1000;

    SensorInfo[] getSensors();
    @nullable SensorInfo find(@utf8InCpp String name);
    boolean activate(int handle, int rate);
    /** Fills the events that are waiting, and answers how many are left. */
    int poll(out SensorEvent[] events, inout int[] handles);
    oneway void flush(int handle);
}
