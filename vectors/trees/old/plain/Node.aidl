package plain;

parcelable Node {
    int key;
    plain.Node[] below;
}
