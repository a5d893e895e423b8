/* A gauge, in C++: constructors, of which one runs before main, a virtual call, and blocks by new and delete. The first byte of the input
   is the number of levels, which follow. It has two bugs, which show with each input. */
#include <unistd.h>

namespace gauge {

struct Calibration {
    int offset;
    Calibration() : offset(3) {}
};

static Calibration calibration;                 /* its constructor runs before main */

class Levels {
public:
    explicit Levels(unsigned count) : count(count), values(new unsigned char[count])
    {
        read(STDIN_FILENO, values, count);
    }
    virtual ~Levels() { delete[] values; }
    virtual int result() const { return count; }

protected:
    unsigned count;
    unsigned char *values;
};

class Highest : public Levels {
public:
    explicit Highest(unsigned count) : Levels(count), unit(new char[2]{'c', 'm'}) {}
    int result() const override;

private:
    char *unit;                                 /* bug: no destructor deletes it */
};

int Highest::result() const
{
    int found = 0;
    for (unsigned at = 0; at <= count; at++)    /* bug: `<` was meant */
        if (values[at] > found)
            found = values[at];
    return found + calibration.offset;
}

}

int main()
{
    unsigned char count = 0;
    read(STDIN_FILENO, &count, 1);
    gauge::Levels *levels = new gauge::Highest(count);
    int result = levels->result();
    delete levels;
    return result;
}
