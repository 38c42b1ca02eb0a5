package newer;

import newer.Small;
import newer.Whole;
import newer.Wide;

parcelable Kinds {
    newer.Small small = newer.Small.MINUS;
    newer.Whole whole = newer.Whole.NONE;
    newer.Wide wide = newer.Wide.FAR;
    newer.Small[] smalls;
    newer.Whole[] wholes;
    @nullable newer.Wide[] wides;
}
