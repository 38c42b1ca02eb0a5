package calls;

import calls.Sample;

interface ICalls {
    const int LIMIT = 8;

    void nothing();
    boolean flag(boolean a, byte b, char c, int d, long e);
    byte small(byte a);
    char letter(char a);
    int number(int a);
    long large(long a);
    String text(String a, @nullable String b);
    @nullable String maybeText(@utf8InCpp String a, @nullable @utf8InCpp String b);
    @utf8InCpp String narrow();
    int[] numbers(in int[] a, out int[] b, inout int[] c);
    @nullable byte[] bytes(in byte[] a, out byte[] b, inout @nullable byte[] c);
    boolean[] flags(in @nullable boolean[] a, out boolean[] b, inout boolean[] c);
    char[] letters(in char[] a, out @nullable char[] b, inout char[] c);
    long[] larges(in long[] a, out long[] b, inout long[] c);
    String[] texts(in String[] a, out String[] b, inout String[] c);
    @nullable String[] maybeTexts(in @nullable String[] a, out @nullable String[] b, inout @nullable String[] c);
    List<String> list(in List<String> a, out List<String> b, inout List<String> c);
    calls.Sample sample(in calls.Sample a, out calls.Sample b, inout calls.Sample c);
    @nullable calls.Sample maybeSample(in @nullable calls.Sample a, inout @nullable calls.Sample b);
    calls.Sample[] samples(in calls.Sample[] a, out calls.Sample[] b, inout calls.Sample[] c);
    oneway void told(in calls.Sample a, String b);
}
