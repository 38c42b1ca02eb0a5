package newer;

import newer.Small;
import plain.Point;

union Choice {
    int number = 3;
    String text;
    plain.Point point;
    @nullable int[] numbers;
    newer.Small small;
    boolean[] flags;
}
