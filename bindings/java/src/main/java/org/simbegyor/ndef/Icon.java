package org.simbegyor.ndef;

import java.util.Arrays;
import java.util.Objects;
import org.jspecify.annotations.Nullable;

/** An icon of a smart poster. */
public final class Icon {
    private final String mediaType;
    private final byte[] data;

    Icon(String mediaType, byte[] data) {
        this.mediaType = mediaType;
        this.data = data;
    }

    /**
     * The media type, a character for each byte. The standard asks for one that begins with image/ or video/, and
     * nothing looks at that.
     *
     * @return a type such as image/png
     */
    public String mediaType() {
        return mediaType;
    }

    /**
     * The image.
     *
     * @return a copy of its bytes
     */
    public byte[] data() {
        return data.clone();
    }

    @Override
    public boolean equals(@Nullable Object other) {
        return other instanceof Icon && mediaType.equals(((Icon) other).mediaType)
                && Arrays.equals(data, ((Icon) other).data);
    }

    @Override
    public int hashCode() {
        return Objects.hash(mediaType, Arrays.hashCode(data));
    }

    @Override
    public String toString() {
        return "Icon " + mediaType + " of " + data.length + " bytes";
    }
}
