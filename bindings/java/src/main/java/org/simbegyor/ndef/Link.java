package org.simbegyor.ndef;

import java.util.ArrayList;
import java.util.Collections;
import java.util.List;
import java.util.Objects;
import java.util.Optional;
import org.jspecify.annotations.Nullable;

/** A link of a message: an alternative carrier of its handover, and the record to which it refers. */
public final class Link {
    private final AlternativeCarrier alternative;
    private final NdefRecord record;

    private Link(AlternativeCarrier alternative, NdefRecord record) {
        this.alternative = alternative;
        this.record = record;
    }

    /** The links of a message whose handover has this payload. */
    static List<Link> listOf(byte[] message, NdefRecord[] records, byte[] payload) throws FormatException {
        int[] rows = Library.list(Library.LINKS, message, payload);
        List<Link> links = new ArrayList<>();
        for (int row = 0; row < rows.length; row += 4) {
            byte[] carrier = NdefRecord.part(payload, rows[row], rows[row + 1]);
            links.add(new Link(new AlternativeCarrier(carrier), rows[row + 3] == 0 ? null : records[rows[row + 2]]));
        }
        return Collections.unmodifiableList(links);
    }

    /**
     * The alternative carrier.
     *
     * @return the alternative carrier
     */
    public AlternativeCarrier alternative() {
        return alternative;
    }

    /**
     * The first record of the message whose id is the carrier data reference.
     *
     * @return the record, if there is one
     */
    public Optional<NdefRecord> record() {
        return Optional.ofNullable(record);
    }

    @Override
    public boolean equals(@Nullable Object other) {
        return other instanceof Link && alternative.equals(((Link) other).alternative)
                && Objects.equals(record, ((Link) other).record);
    }

    @Override
    public int hashCode() {
        return Objects.hash(alternative, record);
    }

    @Override
    public String toString() {
        return alternative + " to " + record;
    }
}
