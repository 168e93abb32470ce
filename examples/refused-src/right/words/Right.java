package words;

public class Right {
}
