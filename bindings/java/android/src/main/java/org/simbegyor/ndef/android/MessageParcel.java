package org.simbegyor.ndef.android;

import android.os.BadParcelableException;
import android.os.Parcel;
import android.os.Parcelable;
import org.jspecify.annotations.Nullable;
import org.simbegyor.ndef.FormatException;
import org.simbegyor.ndef.NdefMessage;

/** A message in a parcel of Android: for the extras of an intent, and for what an activity saves. */
public final class MessageParcel implements Parcelable {
    /** Makes the messages of parcels again. A parcel without such a message is a BadParcelableException. */
    public static final Creator<MessageParcel> CREATOR = new Creator<MessageParcel>() {
        @Override
        public MessageParcel createFromParcel(Parcel parcel) {
            byte[] bytes = parcel.createByteArray();
            try {
                return new MessageParcel(new NdefMessage(bytes == null ? new byte[0] : bytes));
            } catch (FormatException refusal) {
                throw new BadParcelableException(refusal);
            }
        }

        @Override
        public MessageParcel[] newArray(int size) {
            return new MessageParcel[size];
        }
    };

    private final NdefMessage message;

    /**
     * A message that goes into a parcel.
     *
     * @param message the message
     * @throws org.simbegyor.ndef.RecordException if {@link NdefMessage#NdefMessage(byte[])} would refuse it, as may be with
     *     one of other limits, of another profile, or unchecked
     */
    public MessageParcel(NdefMessage message) {
        this.message = new NdefMessage(message.getRecords());
    }

    /**
     * The message.
     *
     * @return the message
     */
    public NdefMessage message() {
        return message;
    }

    @Override
    public int describeContents() {
        return 0;
    }

    @Override
    public void writeToParcel(Parcel parcel, int flags) {
        parcel.writeByteArray(message.toByteArray());
    }

    @Override
    public boolean equals(@Nullable Object other) {
        return other instanceof MessageParcel && message.equals(((MessageParcel) other).message);
    }

    @Override
    public int hashCode() {
        return message.hashCode();
    }

    @Override
    public String toString() {
        return "MessageParcel " + message;
    }
}
