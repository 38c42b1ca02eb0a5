package newer;

@Backing(type="long") enum Wide {
    NONE = 0,
    FAR = 4294967296,
}
