// qt FOLDER MILLISECONDS: times QNdefMessage::fromByteArray of Qt, which takes no look into payloads. qt FOLDER once CALL NAME reads a file
// and makes one call, or with 'nothing' none.
#include <QByteArray>
#include <QFile>
#include <QNdefMessage>
#include <cstdio>
#include <cstdlib>
#include <cstring>
#include <ctime>

static double now() {
    timespec at;
    clock_gettime(CLOCK_PROCESS_CPUTIME_ID, &at);
    return double(at.tv_sec) * 1e9 + double(at.tv_nsec);
}

static QByteArray message(const char *folder, const char *name) {
    QFile file(QString::fromUtf8(folder) + QLatin1Char('/') + QString::fromUtf8(name));
    if (!file.open(QIODevice::ReadOnly)) std::exit(1);
    return file.readAll();
}

static void time_one(const QByteArray &bytes, const char *name, double milliseconds) {
    double begun = now(), least = 1e18;
    long batch = 1;
    do {
        double from = now();
        for (long i = 0; i < batch; i++)
            if (QNdefMessage::fromByteArray(bytes).isEmpty()) std::exit(1);
        double took = now() - from;
        if (took / double(batch) < least) least = took / double(batch);
        if (took < 1e6) batch *= 2;
    } while (now() - begun < milliseconds * 1e6);
    std::printf("read %s %.2f\n", name, least);
}

int main(int count, char **arguments) {
    if (count == 5 && std::strcmp(arguments[2], "once") == 0) {
        QByteArray bytes = message(arguments[1], arguments[4]);
        return std::strcmp(arguments[3], "nothing") != 0 && QNdefMessage::fromByteArray(bytes).isEmpty();
    }
    if (count != 3) return 2;
    for (const char *name : {"hello", "umlauts", "uri", "poster", "records-1000", "opaque-1M", "ascii-1M", "wide-1M", "chunks-4000", "records-100",
                             "records-10000", "records-60000"})
        time_one(message(arguments[1], name), name, std::atof(arguments[2]));
}
