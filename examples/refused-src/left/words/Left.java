package words;

public class Left {
}
