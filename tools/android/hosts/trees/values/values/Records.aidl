package values;

import values.Arrays;
import values.R;
import values.Scalars;
import values.TextArrays;
import values.Texts;

parcelable Records {
    values.Scalars scalars;
    @nullable values.Texts texts;
    values.R[] all;
    values.Arrays arrays;
    @nullable values.TextArrays textArrays;
    int last;
}
