package plain;

import plain.Outer;
import plain.Point;

interface IPoints {
    int put(in plain.Point point);
    plain.Point[] all(out int[] marks, inout String[] names);
    oneway void poke(int number);
    @nullable plain.Point find(@nullable String name);
    void turn(inout plain.Outer outer, boolean back, char mark, long time);
}
