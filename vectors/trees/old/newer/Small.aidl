package newer;

@Backing(type="byte") enum Small {
    NONE = 0,
    MINUS = -3,
    MOST = 127,
}
