package fan;
import fan.Speed;
interface IFan {
    void turn(in Speed speed);
}
