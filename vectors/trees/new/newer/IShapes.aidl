package newer;

import newer.Choice;
import newer.Fixed;
import newer.Shape;
import newer.Small;
import plain.Point;

interface IShapes {
    newer.Shape draw(in newer.Choice choice, newer.Small small) = 2;
    void change(inout newer.Shape shape, out newer.Choice[] choices, in List<plain.Point> points) = 5;
    newer.Fixed size(in newer.Fixed fixed) = 16;
    void clear() = 3;
}
