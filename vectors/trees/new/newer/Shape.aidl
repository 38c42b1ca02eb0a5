package newer;

parcelable Shape {
    newer.Shape.Corner corner;
    newer.Shape.Corner[] corners;
    newer.Shape.Fill fill;
    newer.Shape.Kind kind = newer.Shape.Kind.OPEN;
    newer.Shape.Fill[] fills;
    newer.Shape.Kind[] kinds;
    parcelable Corner {
        int angle;
        newer.Shape.Kind kind = newer.Shape.Kind.CLOSED;
        String name = "corner";
    }
    union Fill {
        int color = 255;
        newer.Shape.Corner corner;
        String pattern;
    }
    @Backing(type="int") enum Kind {
        CLOSED = 0,
        OPEN = 1,
            HALF = 2,
    }
}
