package values;

parcelable Node {
    int key;
    values.Node[] below;
}
