package newer;

@Backing(type="int") enum Whole {
    NONE = 0,
    ONE = 1,
    SAME = 1,
    LEAST = -2147483648,
}
