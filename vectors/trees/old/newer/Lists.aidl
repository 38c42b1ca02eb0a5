package newer;

import newer.Choice;
import plain.Point;

parcelable Lists {
    List<plain.Point> points;
    @nullable List<plain.Point> maybePoints;
    @nullable plain.Point[] other;
    newer.Choice[] choices;
    @nullable newer.Choice choice;
}
