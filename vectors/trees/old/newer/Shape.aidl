package newer;

parcelable Shape {
    newer.Shape.Corner corner;
    newer.Shape.Corner[] corners;
    newer.Shape.Fill fill;
    newer.Shape.Kind kind = newer.Shape.Kind.OPEN;
    parcelable Corner {
        int angle;
        newer.Shape.Kind kind = newer.Shape.Kind.CLOSED;
    }
    union Fill {
        int color = 255;
        newer.Shape.Corner corner;
    }
    @Backing(type="int") enum Kind {
        CLOSED = 0,
        OPEN = 1,
    }
}
