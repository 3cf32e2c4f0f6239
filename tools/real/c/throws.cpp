// Exceptions that are thrown, caught by type and rethrown, and objects that are destroyed during unwinding.

struct Guard {
    int &count;
    explicit Guard(int &c) : count(c) { ++count; }
    ~Guard() { --count; }
};

struct Fault {
    int code;
};

int depth;

void deeper(int n)
{
    Guard guard(depth);
    if (n == 0)
        throw Fault{42};
    if (n == 1)
        throw n;
    deeper(n - 2);
}

int tried(int n)
{
    try {
        Guard guard(depth);
        deeper(n);
    } catch (const Fault &fault) {
        return fault.code;
    } catch (int code) {
        return -code;
    } catch (...) {
        throw;
    }
    return 0;
}

int nested(int n)
{
    try {
        try {
            return tried(n) + tried(n + 1);
        } catch (Fault &fault) {
            fault.code++;
            throw;
        }
    } catch (...) {
        return -1;
    }
}
