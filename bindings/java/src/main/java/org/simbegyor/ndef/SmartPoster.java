package org.simbegyor.ndef;

import java.nio.charset.StandardCharsets;
import java.util.ArrayList;
import java.util.Arrays;
import java.util.Collections;
import java.util.List;
import java.util.Objects;
import java.util.Optional;
import java.util.OptionalInt;
import java.util.OptionalLong;

/** A smart poster ({@code Sp}, NFC Forum RTD Smart Poster 1.0): a URI and what it leads to. */
public final class SmartPoster extends Payload {
    /** The action: do what the URI says. */
    public static final int ACTION_DO = 0;
    /** The action: keep the URI for later. */
    public static final int ACTION_SAVE = 1;
    /** The action: open what the URI leads to for editing. */
    public static final int ACTION_OPEN = 2;

    private final int[] numbers;
    private final String uri;
    private final List<NdefRecord> records;
    private final List<TextRecord> titles;
    /** Where the payload of each record ends. */
    private final int[] ends;

    SmartPoster(byte[] payload, Profile profile) throws FormatException {
        super(Types.SMART_POSTER, payload);
        numbers = Library.numbers(Numbers.KIND_SMART_POSTER, payload, profile);
        uri = new UriRecord(part(numbers[0], numbers[1]), profile).uri();
        int[] rows = Library.list(Library.RECORDS, payload, null);
        records = Collections.unmodifiableList(Arrays.asList(NdefRecord.listOf(payload, rows, profile)));
        ends = NdefRecord.endsOf(rows);
        List<TextRecord> found = new ArrayList<>();
        for (NdefRecord record : records) {
            if (record.kind(Numbers.KIND_SMART_POSTER) == Numbers.KIND_TEXT) {
                found.add(new TextRecord(record.payload()));
            }
        }
        titles = Collections.unmodifiableList(found);
    }

    /**
     * Reads the payload of a smart poster.
     *
     * @param payload the payload, its chunks joined
     * @param profile what becomes of reserved values
     * @return the poster
     * @throws FormatException if it is no such payload
     */
    public static SmartPoster parse(byte[] payload, Profile profile) throws FormatException {
        return new SmartPoster(payload.clone(), profile);
    }

    /**
     * Begins a smart poster.
     *
     * @param uri its URI
     * @return a builder
     * @throws IllegalArgumentException if no UTF-8 spells the URI
     */
    public static Builder builder(String uri) {
        return new Builder(uri);
    }

    /**
     * The URI.
     *
     * @return the URI
     */
    public String uri() {
        return uri;
    }

    /**
     * The titles, one text in each of several languages.
     *
     * @return the titles, in the order of their records
     */
    public List<TextRecord> titles() {
        return titles;
    }

    /**
     * The first title in a language.
     *
     * @param language a language code, such as en; upper and lower case are the same
     * @return the title, if there is one
     */
    public Optional<TextRecord> title(String language) {
        int[] found = Library.list(Library.TITLE, payload(), Strings.utf8(language));
        if (found.length == 0) {
            return Optional.empty();
        }
        int index = Arrays.binarySearch(ends, found[0] + found[1]);
        return Optional.of(promised(() -> new TextRecord(records.get(index).payload())));
    }

    /**
     * The action.
     *
     * @return the action, as {@link #ACTION_DO}, if there is one; 3 to 255 are reserved
     */
    public OptionalInt action() {
        return numbers[2] == 0 ? OptionalInt.empty() : OptionalInt.of(numbers[3]);
    }

    /**
     * The size in bytes of what the URI leads to.
     *
     * @return the size, if the poster gives it
     */
    public OptionalLong size() {
        return numbers[4] == 0 ? OptionalLong.empty() : OptionalLong.of(numbers[5] & 0xffffffffL);
    }

    /**
     * The media type of what the URI leads to.
     *
     * @return the media type, if the poster gives it
     */
    public Optional<String> mediaType() {
        int[] found = Library.list(Library.MEDIA_TYPE, payload(), null);
        return found.length == 0 ? Optional.empty() : Optional.of(Strings.ofUtf8(part(found[0], found[1])));
    }

    /**
     * The icons: each record of a media type.
     *
     * @return the icons, in the order of their records
     */
    public List<Icon> icons() {
        int[] rows = Library.list(Library.ICONS, payload(), null);
        List<Icon> icons = new ArrayList<>();
        for (int row = 0; row < rows.length; row += 4) {
            String mediaType = new String(part(rows[row], rows[row + 1]), StandardCharsets.ISO_8859_1);
            icons.add(new Icon(mediaType, part(rows[row + 2], rows[row + 3])));
        }
        return Collections.unmodifiableList(icons);
    }

    /**
     * All records in the poster.
     *
     * @return the records
     */
    public List<NdefRecord> records() {
        return records;
    }

    @Override
    public String toString() {
        return "SmartPoster uri=" + uri + " titles=" + titles;
    }

    /** Builds a smart poster: its records stand in the order of the calls, the URI first. */
    public static final class Builder {
        private final List<NdefRecord> records = new ArrayList<>();

        private Builder(String uri) {
            records.add(UriRecord.of(uri).toRecord());
        }

        /**
         * Adds a title.
         *
         * @param language the language code, such as en
         * @param text the title
         * @return this builder
         * @throws IllegalArgumentException as {@link TextRecord#of} does
         */
        public Builder title(String language, String text) {
            return record(TextRecord.of(language, text).toRecord());
        }

        /**
         * Adds an action.
         *
         * @param action 0 to 255, as {@link #ACTION_SAVE}
         * @return this builder
         * @throws IllegalArgumentException if it is another
         */
        public Builder action(int action) {
            byte[] payload = Library.written("an action is 0 to 255", Library.WRITE_ACTION, null, null, action, 0);
            return record(NdefRecord.wellKnown(Types.ACTION, payload));
        }

        /**
         * Adds the size in bytes of what the URI leads to.
         *
         * @param bytes 0 to 4294967295
         * @return this builder
         * @throws IllegalArgumentException if it is another
         */
        public Builder size(long bytes) {
            String refusal = "a size is 0 to 4294967295";
            if (bytes != (bytes & 0xffffffffL)) {
                throw new IllegalArgumentException(refusal);
            }
            byte[] payload = Library.written(refusal, Library.WRITE_SIZE, null, null, (int) bytes, 0);
            return record(NdefRecord.wellKnown(Types.SIZE, payload));
        }

        /**
         * Adds the media type of what the URI leads to.
         *
         * @param mediaType a type such as text/html
         * @return this builder
         * @throws IllegalArgumentException if no UTF-8 spells it
         */
        public Builder mediaType(String mediaType) {
            return record(NdefRecord.wellKnown(Types.MEDIA_TYPE, Strings.utf8(mediaType)));
        }

        /**
         * Adds an icon.
         *
         * @param mediaType its media type, which should begin with image/ or video/
         * @param data the image
         * @return this builder
         * @throws IllegalArgumentException if the media type is empty or too long
         */
        public Builder icon(String mediaType, byte[] data) {
            Objects.requireNonNull(data, "the image is null");
            return record(new NdefRecord(NdefRecord.TNF_MIME_MEDIA, Strings.latin1(mediaType), null, data));
        }

        /**
         * Adds any record.
         *
         * @param record the record
         * @return this builder
         */
        public Builder record(NdefRecord record) {
            records.add(Objects.requireNonNull(record, "the record is null"));
            return this;
        }

        /**
         * The poster.
         *
         * @return the poster
         * @throws IllegalArgumentException if the records that were added are none of a poster
         */
        public SmartPoster build() {
            byte[] payload = NdefMessage.unchecked(records.toArray(new NdefRecord[0])).toByteArray();
            return promised(() -> new SmartPoster(payload, Profile.STRICT));
        }
    }
}
