package calls;

interface IVersioned {
    int number(int a);
}
