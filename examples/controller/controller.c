/* One step of a controller: it filters samples, looks for the greatest deviation, and acts on a command. */

#define SAMPLES 16
#define TAPS 5

static const int weights[TAPS] = {1, 4, 6, 4, 1};

static int absolute(int value)
{
    return value < 0 ? -value : value;
}

__attribute__((noinline)) int filtered(const int *samples, int at)
{
    int sum = 0;
    for (int tap = 0; tap < TAPS; tap++)
        sum += weights[tap] * samples[(at + tap) & (SAMPLES - 1)];
    return sum >> 4;
}

__attribute__((noinline)) int deviation(const int *samples, int goal)
{
    int greatest = 0;
    for (int at = 0; at < SAMPLES; at++) {
        int distance = absolute(filtered(samples, at) - goal);
        if (distance > greatest)
            greatest = distance;
    }
    return greatest;
}

__attribute__((noinline)) int act(int command, int value)
{
    switch (command) {
    case 0: return value;
    case 1: return value * 3;
    case 2: return value / 7;
    case 3: return value - 100;
    case 4: return value << 2;
    case 5: return value ^ 0x55;
    case 6: return ~value;
    case 7: return value * value;
    default: return 0;
    }
}

int step(const int *samples, int goal, int command)
{
    int worst = deviation(samples, goal);
    int first = act(command, worst);
    if (first > 1000)
        return act(command + 1, first);
    return first;
}

void _start(void)
{
}
