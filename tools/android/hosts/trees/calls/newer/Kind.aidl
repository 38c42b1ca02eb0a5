package newer;

@Backing(type="long") enum Kind {
    FIRST = 0,
    SECOND = -3,
}
